PREFIX ex: <http://e/>
DROP GRAPH ex:n
----
PREFIX ex: <http://e/>
DROP SILENT GRAPH ex:n ; INSERT DATA { ex:a ex:p 1 }
