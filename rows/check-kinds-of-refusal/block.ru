PREFIX ex: <http://e/>
INSERT DATA { ?x nope:p 1 }
----
PREFIX ex: <http://e/>
INSERT DATA { GRAPH ?g { ex:a ex:p 1 } }
----
PREFIX ex: <http://e/>
DELETE WHERE { _:x ex:p ?o }
----
PREFIX ex: <http://e/>
INSERT DATA { _:x ex:p 1 } ;
INSERT DATA { _:x ex:p 2 }
----
PREFIX ex: <http://e/>
INSERT DATA { ex:a ex:p -1 }
----
PREFIX ex: <http://e/>
INSERT DATA { ex:a ex:p 1.5 }
----
PREFIX ex: <http://e/>
INSERT DATA { ex:a ex:p 1. }
----
PREFIX ex: <http://e/>
INSERT DATA { ex:a a ex:C }
----
PREFIX ex: <http://e/>
INSERT DATA { ex:a A ex:C }
----
PREFIX ex: <http://e/>
insert data { } ;
----
PREFIX ex: <http://e/>
;
----
PREFIX ex: <http://e/>
INSERT { ?x ex:p 1 } WHERE { _:b ex:p ?x }