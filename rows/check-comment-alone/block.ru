 	
# nothing