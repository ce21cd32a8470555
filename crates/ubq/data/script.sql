-- Rows, groups in an order with a limit, an aggregate over no rows.
SELECT * FROM t WHERE x BETWEEN 2 AND 3;
SELECT x, COUNT(*), SUM(m) FROM t GROUP BY x ORDER BY SUM(m) DESC LIMIT 2;
SELECT MAX(m) FROM t WHERE x > 9;
