CREATE TABLE role (
  id INTEGER PRIMARY KEY,
  code VARCHAR(20) NOT NULL UNIQUE,
  name TEXT
);
CREATE TABLE sqlite_sequence(name,seq);
CREATE TABLE "user_account"(
  id INTEGER PRIMARY KEY AUTOINCREMENT,
  login TEXT NOT NULL COLLATE BINARY,
  role_id INTEGER REFERENCES role(id) ON DELETE SET NULL,
  enabled BOOLEAN NOT NULL DEFAULT 1 CHECK (enabled IN (0, 1)),
  "nick name" TEXT,
  created DATETIME DEFAULT CURRENT_TIMESTAMP
);
CREATE INDEX login_ix ON user_account(login);
CREATE TRIGGER first_role AFTER INSERT ON role BEGIN UPDATE role SET name = 'a;b' WHERE id = new.id; END;
CREATE VIEW enabled_users AS SELECT id, login FROM user_account WHERE enabled
/* enabled_users(id,login) */;
CREATE TABLE membership(user_id INTEGER NOT NULL, role_id INTEGER NOT NULL, PRIMARY KEY (user_id, role_id)) WITHOUT ROWID;
