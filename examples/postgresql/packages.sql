-- Versions of packages, partitioned by ranges of versions.
CREATE EXTENSION versions;

CREATE TABLE packages (
  name text NOT NULL,
  version version NOT NULL
) PARTITION BY RANGE (version);

CREATE TABLE packages_below_2 PARTITION OF packages FOR VALUES FROM (MINVALUE) TO ('2');
CREATE TABLE packages_from_2 PARTITION OF packages FOR VALUES FROM ('2') TO ('10');
CREATE TABLE packages_from_10 PARTITION OF packages FOR VALUES FROM ('10') TO ('1:0');
CREATE TABLE packages_with_epoch PARTITION OF packages FOR VALUES FROM ('1:0') TO (MAXVALUE);

-- For the oldest, the newest and the matching versions, and for the newest version of each package.
CREATE INDEX packages_by_version ON packages (version);
CREATE INDEX packages_newest ON packages (name, version DESC);
