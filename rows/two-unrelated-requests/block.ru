PREFIX ex: <http://e/>
INSERT DATA { ex:a ex:p 1 }
----
PREFIX ex: <http://e/>
INSERT DATA { ex:b ex:p 1 }
