SELECT * FROM cust;
