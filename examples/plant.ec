% A plant: its pumps, their temperatures and alarms, and its mill, which is in one state at a time.
%
% Three sources write lines, each under a number of its own: the operators (@1), the sensors (@2), and the alarm log (@3), which
% comes hours late. Times are minutes. plant.lines is a part of one shift.
initiates  start(Pump)         running(Pump).
terminates stop(Pump)          running(Pump).
terminates trip(Pump, _)       running(Pump).
initiates  trip(Pump, Cause)   alarm(Pump, Cause).
terminates reset(Pump)         alarm(Pump, overheat).
terminates reset(Pump)         alarm(Pump, dry).

% a reading above 90 degrees is one of overheating, and only one of a running pump counts
initiates  read(Pump, Degrees) hot(Pump) if running(Pump), 90 < Degrees.
terminates read(Pump, Degrees) hot(Pump) if Degrees <= 90.

% what ends one state of the mill begins the next; where the record has a gap, the next state breaks the one before
initiates  enter(State)        mill(State).
terminates leave(State)        mill(State).
exclusive  mill(State)         mill(Other).
