PREFIX ex: <http://e/>
DELETE DATA { ex:a ex:p ex:b }
----
PREFIX ex: <http://e/>
INSERT DATA { ex:a ex:p ex:b }
----
PREFIX ex: <http://e/>
INSERT { ?s ex:q ?o } WHERE { ?s ex:p ?o }
