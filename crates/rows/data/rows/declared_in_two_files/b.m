# again
SEUIL : const = 1000 ;
