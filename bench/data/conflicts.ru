# Adds one to a.
PREFIX ex: <http://example.org/>
DELETE { ex:a ex:count ?n } INSERT { ex:a ex:count ?m } WHERE { ex:a ex:count ?n . ?n ex:next ?m }
----
# Adds one to a again: it reads what the first request writes.
PREFIX ex: <http://example.org/>
DELETE { ex:a ex:count ?n } INSERT { ex:a ex:count ?m } WHERE { ex:a ex:count ?n . ?n ex:next ?m }
----
# Adds one to b.
PREFIX ex: <http://example.org/>
DELETE { ex:b ex:count ?n } INSERT { ex:b ex:count ?m } WHERE { ex:b ex:count ?n . ?n ex:next ?m }
----
# Adds one to a once more.
PREFIX ex: <http://example.org/>
DELETE { ex:a ex:count ?n } INSERT { ex:a ex:count ?m } WHERE { ex:a ex:count ?n . ?n ex:next ?m }
----
# Touches neither counter.
PREFIX ex: <http://example.org/>
INSERT DATA { ex:c ex:count ex:n0 }
----
# Writes the counts of a and b: it reads what most requests below it write.
PREFIX ex: <http://example.org/>
INSERT { ex:sum ex:of ?m , ?n } WHERE { ex:a ex:count ?m . ex:b ex:count ?n }
