PREFIX ex: <http://e/>
INSERT DATA { ex:a ex:p 1 } ;
CREATE GRAPH ex:g
