% A shop opens its books on a day when goods lie on its shelves already. Nobody knows when they came, and no delivery is
% invented for them: `initially` says that they are there from before all events.
initially in_stock(flour).
initially in_stock(sugar).
initially at(ladder,cellar).

initiates deliver(Goods) in_stock(Goods).
terminates sell_out(Goods) in_stock(Goods).

% what is ordered while none is there stays due until it is delivered
initiates order(Goods) due(Goods) if not in_stock(Goods).
terminates deliver(Goods) due(Goods).

% a thing is at one place
initiates carry(Thing, Place) at(Thing, Place).
terminates fetch(Thing, Place) at(Thing, Place).
exclusive at(Thing, Place) at(Thing, Other).
