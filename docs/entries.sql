-- The entries of a file of `mapd --keep`, for sqlite3, while no server has the file open:
--
--     sqlite3 -init docs/entries.sql map.db "SELECT count(*) FROM entries"
--
-- entries(stripe, key, value, deadline) has a row for each entry. Keys and values are blobs. A deadline is in milliseconds since the
-- epoch, or NULL if there is none. What is made here is temporary, so the file stays as it is. Each query reads all batches: if they have a
-- million changes, it takes half a minute.
--
-- A change has one part after the other:
--
--     the length of the key, in a byte
--     its mark, in a byte: 0 if the key has nothing from then on, 1 if it has a value, 2 if it has a value with a deadline
--     the key
--     the deadline in eight bytes, if the mark is 2
--     the length of the value in four bytes, and the value, if the mark is 1 or 2
--
-- The lowest byte of a number comes first. A value has 1,024 bytes at most, so two bytes tell its length.

-- All bytes in their order: `instr(bytes, byte) - 1` is the number in a byte.
CREATE TEMP TABLE all_bytes AS SELECT CAST(
    x'000102030405060708090a0b0c0d0e0f101112131415161718191a1b1c1d1e1f' || x'202122232425262728292a2b2c2d2e2f303132333435363738393a3b3c3d3e3f' ||
    x'404142434445464748494a4b4c4d4e4f505152535455565758595a5b5c5d5e5f' || x'606162636465666768696a6b6c6d6e6f707172737475767778797a7b7c7d7e7f' ||
    x'808182838485868788898a8b8c8d8e8f909192939495969798999a9b9c9d9e9f' || x'a0a1a2a3a4a5a6a7a8a9aaabacadaeafb0b1b2b3b4b5b6b7b8b9babbbcbdbebf' ||
    x'c0c1c2c3c4c5c6c7c8c9cacbcccdcecfd0d1d2d3d4d5d6d7d8d9dadbdcdddedf' || x'e0e1e2e3e4e5e6e7e8e9eaebecedeeeff0f1f2f3f4f5f6f7f8f9fafbfcfdfeff'
    AS BLOB) AS bytes;

CREATE TEMP VIEW entries AS
WITH RECURSIVE
    -- Each change of a batch: where it begins, and where the next one does. The first row of a batch is no change.
    -- ORDER BY has one batch walked after the other.
    places(number, at, next) AS (
        SELECT number, 1, 1 FROM batches
        UNION ALL
        SELECT number, next, (
            SELECT CASE mark WHEN x'00' THEN key_end
                ELSE value_at + instr(bytes, substr(changes, value_at - 4, 1)) - 1 + 256 * (instr(bytes, substr(changes, value_at - 3, 1)) - 1) END
            FROM (SELECT mark, key_end, key_end + CASE mark WHEN x'02' THEN 12 ELSE 4 END AS value_at
                FROM (SELECT substr(changes, next + 1, 1) AS mark, next + 2 + instr(bytes, substr(changes, next, 1)) - 1 AS key_end)))
        FROM places JOIN batches USING (number), all_bytes
        WHERE next <= length(changes)
        ORDER BY number
    ),
    -- What each change has, and where its value begins.
    parts AS (
        SELECT stripe, number, at, next, mark, substr(head, 3, key_length) AS key, substr(head, 3 + key_length, 8) AS deadline,
            at + 2 + key_length + CASE mark WHEN x'02' THEN 12 ELSE 4 END AS value_at
        FROM (SELECT *, substr(head, 2, 1) AS mark, instr(bytes, substr(head, 1, 1)) - 1 AS key_length
            FROM (SELECT *, substr(changes, at, 74) AS head FROM places JOIN batches USING (number), all_bytes WHERE at < next))
    ),
    -- The newest change of each key has the age 1.
    ages AS (SELECT *, row_number() OVER (PARTITION BY stripe, key ORDER BY number DESC, at DESC) AS age FROM parts)
SELECT ages.stripe, key, substr(changes, value_at, next - value_at) AS value,
    CASE mark WHEN x'02' THEN (
        SELECT sum((instr(bytes, substr(deadline, n + 1, 1)) - 1) << 8 * n)
        FROM (SELECT 0 AS n UNION ALL VALUES (1), (2), (3), (4), (5), (6), (7))) END AS deadline
FROM ages JOIN batches USING (number), all_bytes
WHERE age = 1 AND mark <> x'00';
