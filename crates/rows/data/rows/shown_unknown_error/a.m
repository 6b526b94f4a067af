verif 1 : application : iliad ; si 1 alors erreur E ;
