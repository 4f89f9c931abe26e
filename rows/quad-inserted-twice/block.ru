PREFIX ex: <http://e/>
INSERT DATA { ex:a ex:p ex:b }
----
PREFIX ex: <http://e/>
INSERT DATA { ex:a ex:p ex:b . ex:c ex:p ex:b }
