PREFIX ex: <http://e/> INSERT DATA { ex:a ex:p ex:b }
----
INSERT DATA { ex:a ex:p ex:b }
----
PREFIX ex: <http://e/>