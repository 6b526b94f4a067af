verif 2 : application : iliad ; si REV > 0 alors erreur A20 ;
