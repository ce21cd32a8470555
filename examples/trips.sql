-- The second week's trips from the first six zones: where was most earned?
SELECT zone, COUNT(*), SUM(fare), MAX(minutes) FROM trips
WHERE day BETWEEN 8 AND 14 AND zone < 6
GROUP BY zone
ORDER BY SUM(fare) DESC;

-- The longest trips of one day, the longest first.
SELECT zone, minutes, fare FROM trips
WHERE day = 13 AND fare > 0
ORDER BY minutes DESC, zone
LIMIT 3;

-- The first trips of the month from some zones: regions are read in the order of the days, and no more than are needed.
SELECT day, zone, minutes FROM trips
WHERE zone BETWEEN 2 AND 7
ORDER BY day
LIMIT 5;
