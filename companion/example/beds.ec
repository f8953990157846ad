% who lies in which bed, who has a fever, and which beds are isolated for it
initiates  admission(Who, Bed) in(Bed, Who).
terminates discharge(Who, Bed) in(Bed, Who).
exclusive  in(Bed, Who)        in(Other, Who).
initiates  fever(Who)          has_fever(Who).
terminates discharge(Who, _)   has_fever(Who).
initiates  isolation(Who, Bed) isolated(Bed) if in(Bed, Who), has_fever(Who).
terminates cleaning(Bed)       isolated(Bed).
