PREFIX ex: <http://e/>
COPY ex:g TO ex:g
----
PREFIX ex: <http://e/>
MOVE DEFAULT TO ex:h
----
PREFIX ex: <http://e/>
COPY ex:none TO ex:g
