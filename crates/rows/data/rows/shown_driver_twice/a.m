A : calculee : "" ; K : const = 1 ;
