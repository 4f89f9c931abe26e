PREFIX ex: <http://e/>
CLEAR ALL
