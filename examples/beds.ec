% A ward's beds. beds.csv is the record as an office keeps it, and from_csv.py writes beds.lines from it. Times are dates with the time
% of day as one number, 202403010830 for 8:30 on 1 March 2024.
initiates  admission(Patient, Bed) in(Bed, Patient).
terminates discharge(Patient, Bed) in(Bed, Patient).
initiates  fever(Patient, _)       has_fever(Patient).
terminates discharge(Patient, _)   has_fever(Patient).
initiates  isolation(Patient, Bed) isolated(Bed) if in(Bed, Patient), has_fever(Patient).
terminates discharge(Patient, Bed) isolated(Bed) if in(Bed, Patient).
