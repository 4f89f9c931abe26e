PREFIX ex: <http://e/>
INSERT DATA { ex:a ex:p 0 }
----
PREFIX ex: <http://e/>
INSERT DATA { ex:a ex:p 1 }
----
PREFIX ex: <http://e/>
INSERT DATA { ex:a ex:p 2 }
----
PREFIX ex: <http://e/>
INSERT DATA { ex:a ex:p 3 }
----
PREFIX ex: <http://e/>
INSERT DATA { ex:a ex:p 4 }
----
PREFIX ex: <http://e/>
INSERT DATA { ex:a ex:p 5 }
----
PREFIX ex: <http://e/>
INSERT DATA { ex:a ex:p 6 }
----
PREFIX ex: <http://e/>
INSERT DATA { ex:a ex:p 7 }
