-- Tables of this connection alone: nothing of the database is changed. Person and Role have a column _pos; Pay gets its by a view.
CREATE TEMPORARY TABLE Person (_pos BIGINT PRIMARY KEY, id BIGINT NOT NULL, name TEXT NOT NULL, roleId BIGINT NOT NULL, age BIGINT NOT NULL, active BOOLEAN NOT NULL);
INSERT INTO Person VALUES (0, 1, 'ann', 2, 30, TRUE), (1, 2, 'bob', 1, 25, FALSE), (2, 3, 'cat', 2, 41, TRUE), (3, 4, 'ann', 3, 19, TRUE), (4, 5, 'dan', 1, 25, FALSE);
CREATE TEMPORARY TABLE Role (_pos BIGINT PRIMARY KEY, id BIGINT NOT NULL, label TEXT NOT NULL);
INSERT INTO Role VALUES (0, 1, 'admin'), (1, 2, 'staff'), (2, 2, 'crew');
CREATE TEMPORARY TABLE PayRows (id BIGINT PRIMARY KEY, personId BIGINT NOT NULL, amount BIGINT NOT NULL);
INSERT INTO PayRows VALUES (7, 3, -20), (3, 3, 75), (1, 1, 120);
CREATE TEMPORARY VIEW Pay AS SELECT id, personId, amount, ROW_NUMBER() OVER (ORDER BY id) - 1 AS _pos FROM PayRows;
