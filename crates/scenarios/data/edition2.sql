CREATE TABLE round_aim (round INTEGER NOT NULL PRIMARY KEY REFERENCES round (number), generous INTEGER NOT NULL CHECK (generous IN (0, 1))) STRICT;
INSERT INTO round_aim SELECT number, open FROM round;
UPDATE edition SET number = 2;
