SELECT c.region, COUNT(*) AS orders, SUM(o.price) AS total
FROM ord o JOIN cust c ON o.cust = c.id
WHERE o.price >= 5
GROUP BY c.region
ORDER BY total DESC
