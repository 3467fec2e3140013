SELECT c.name, o.id FROM cust c LEFT JOIN ord o ON o.cust = c.id ORDER BY o.id
