INSERT DATA { nope:a nope:p nope:b }
----
INSERT DATA { ?x <http://e/p> <http://e/b> }
----
DELETE DATA { ?x nope:p <http://e/b> }
