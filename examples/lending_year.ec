% A year of a lending library. Members borrow what is not lent to anybody, each book stands at one shelf, and a reader's card
% starts anew each time it is renewed.
initiates borrow(Member, Book) has_book(Member, Book) if member(Member), not lent(Book).
initiates borrow(Member, Book) lent(Book) if member(Member), not lent(Book).
terminates return(Member, Book) has_book(Member, Book).
terminates return(Member, Book) lent(Book).
initiates join(Member) member(Member).
terminates leave(Member) member(Member).

initiates renew(Member) card(Member) if member(Member).
terminates leave(Member) card(Member).
strong card/1.

initiates shelve(Book, Shelf) place(Book, Shelf).
terminates clear(Shelf, Book) place(Book, Shelf).
exclusive place(Book, Shelf) place(Book, Other).
