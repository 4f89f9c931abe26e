PREFIX ex: <http://e/>
INSERT DATA { ex:a ex:p 1 }
----
PREFIX ex: <http://e/>
INSERT DATA { ?x ex:p 1 }
----
PREFIX ex: <http://e/>
DELETE DATA { nope:a nope:b 1 }
