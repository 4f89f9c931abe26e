PREFIX ex: <http://e/>
MOVE ex:none TO ex:none
----
PREFIX ex: <http://e/>
MOVE SILENT ex:none TO ex:g
