PREFIX ex: <http://e/>
INSERT DATA { ex:a ex:p 1 , 'x\ty'@EN-gb , "z"^^<http://www.w3.org/2001/XMLSchema#string> , true }
----
PREFIX ex: <http://e/>
DELETE { ?s ex:p 01 } WHERE { ?s ex:p 1 }
