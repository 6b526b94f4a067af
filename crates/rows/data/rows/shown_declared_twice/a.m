A : const = 1 ; A : const = 1 ;
