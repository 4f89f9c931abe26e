INSERT DATA { <x:b> <x:p> <x:c> }
----
INSERT { ?s <x:q> ?o } WHERE { ?s <x:p> ?o }
----
INSERT DATA { <x:a> <x:q> <x:b> }
