SELECT name FROM cust WHERE city = 'Paris'
