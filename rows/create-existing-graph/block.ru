PREFIX ex: <http://e/>
CREATE GRAPH ex:g
----
PREFIX ex: <http://e/>
