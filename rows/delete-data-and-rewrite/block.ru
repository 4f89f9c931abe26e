DELETE DATA { <http://e/a> <http://e/p> <http://e/b> , <http://e/c> }
----
DELETE { ?s <http://e/p> ?o } INSERT { $o <http://e/q> $s } WHERE { ?s <http://e/p> ?o }
