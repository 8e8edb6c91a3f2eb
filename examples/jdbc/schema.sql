CREATE TABLE Person (id BIGINT, name TEXT, roleId BIGINT, age BIGINT, active BOOLEAN);
CREATE TABLE Role (id BIGINT, label TEXT);
CREATE TABLE Pay (id BIGINT, personId BIGINT, amount BIGINT);
