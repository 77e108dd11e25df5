"""Small programs, each with a run that never ends, and what kind of lasso is found of it; and some that all end."""

# The rules of each, and how the turn of a lasso of it goes: back to where it begins, on by the same differences each time,
# or in neither way; the start symbol is f.
BACK, ON, NEITHER = "back", "on", None
ENDLESS = {
    "stays": ("f(A) -> Com_1(g(A)) g(A) -> Com_1(g(A))", BACK),
    "waits at no place": ("f() -> Com_1(f())", BACK),
    "zero divisor": ("f(A,B) -> Com_1(g(A,B)) g(A,B) -> Com_1(g(A-B,B)) :|: A >= B && A >= 1", BACK),
    "zero stride": ("f(X,Y,S) -> Com_1(g(X,Y,S)) g(X,Y,S) -> Com_1(g(X+S,Y,S)) :|: X < Y", BACK),
    "bisection that stays": (
        "f(L,H,M) -> Com_1(g(L,H,M)) g(L,H,M) -> Com_1(g(K,H,M)) :|: L < H && 2*K <= L+H && L+H <= 2*K+1", BACK),
    "toggle": ("f(A) -> Com_1(g(A)) g(A) -> Com_1(g(1-A)) :|: A >= 0 && A <= 1", BACK),
    "sign": ("f(A) -> Com_1(g(A)) g(A) -> Com_1(g(-A)) :|: A <= 9 && A >= -9", BACK),
    "swap": ("f(A,B) -> Com_1(g(A,B)) g(A,B) -> Com_1(g(B,A)) :|: A + B >= 1", BACK),
    "reset": ("f(A) -> Com_1(g(A)) g(A) -> Com_1(g(A-1)) :|: A >= 1 g(A) -> Com_1(g(3)) :|: A <= 0", BACK),
    "wraps at 10": (
        "f(A) -> Com_1(g(0)) g(A) -> Com_1(g(A+1)) :|: A < 10 g(A) -> Com_1(g(0)) :|: A >= 10", BACK),
    "wraps at 1,000": (
        "f(A) -> Com_1(g(0)) g(A) -> Com_1(g(A+1)) :|: A < 1000 g(A) -> Com_1(g(0)) :|: A >= 1000", BACK),
    "quarter turn": ("f(A,B) -> Com_1(g(A,B)) g(A,B) -> Com_1(g(-B,A)) :|: A^2 + B^2 >= 1", BACK),
    "third of a turn": ("f(A,B) -> Com_1(g(A,B)) g(A,B) -> Com_1(g(-B,A-B)) :|: A^2 + B^2 >= 1", BACK),
    "sixth of a turn": ("f(A,B) -> Com_1(g(A,B)) g(A,B) -> Com_1(g(A-B,A)) :|: A^2 + B^2 >= 1", BACK),
    "square": ("f(A) -> Com_1(g(A)) g(A) -> Com_1(g(A*A)) :|: A >= 1", BACK),
    "server": ("f(A) -> Com_1(w(A)) w(A) -> Com_1(s(B)) :|: B >= 1 s(B) -> Com_1(s(B-1)) :|: B >= 1 "
               "s(B) -> Com_1(w(B)) :|: B <= 0", BACK),
    "two symbols": ("f(A) -> Com_1(g(A)) g(A) -> Com_1(h(A+1)) :|: A >= 0 h(A) -> Com_1(g(A-1)) :|: A >= 1", BACK),
    "free value": ("f(A) -> Com_1(g(A)) g(A) -> Com_1(g(Z)) :|: Z >= A && A >= 1", BACK),
    "product with zero": ("f(A,B) -> Com_1(g(A,B)) g(A,B) -> Com_1(g(A*B,B)) :|: A >= 0", BACK),
    "equal values": ("f(A,B) -> Com_1(g(A,B)) g(A,B) -> Com_1(g(A,A)) :|: A = B", BACK),
    "goes nowhere": ("f(A) -> Com_1(g(A)) g(A) -> Com_1(g(A+Z)) :|: Z >= 0 && A >= 1", BACK),
    "three symbols": ("f(A) -> Com_1(a(A)) a(A) -> Com_1(b(A)) b(A) -> Com_1(c(A)) c(A) -> Com_1(a(A))", BACK),
    "nested": ("f(A,B) -> Com_1(g(A,2)) g(A,B) -> Com_1(g(A,B-1)) :|: B >= 1 g(A,B) -> Com_1(g(A-1,2)) :|: B <= 0 && "
               "A >= 1 g(A,B) -> Com_1(g(4,2)) :|: B <= 0 && A <= 0", BACK),
    "without cost": ("f(A) -> Com_1(g(A)) g(A) -{0}> Com_1(g(A))", BACK),
    "costs its value": ("f(A) -> Com_1(g(A)) g(A) -{A^2}> Com_1(g(A)) :|: A >= 2", BACK),
    "below zero": ("f(A) -> Com_1(g(A)) g(A) -> Com_1(g(A)) :|: A <= -5", BACK),
    "one value": ("f(A,B) -> Com_1(g(A,B)) g(A,B) -> Com_1(g(A,B)) :|: A = 5 && B = -6", BACK),
    "behind a loop": ("f(A) -> Com_1(g(A)) g(A) -> Com_1(g(A-1)) :|: A >= 1 g(A) -> Com_1(h(A)) :|: A <= 0 "
                      "h(A) -> Com_1(h(A))", BACK),
    "grows": ("f(A) -> Com_1(g(A)) g(A) -> Com_1(g(A+1)) :|: A >= 1", ON),
    "doubles": ("f(A) -> Com_1(g(A)) g(A) -> Com_1(g(2*A)) :|: A >= 1", NEITHER),
    "falls behind": ("f(X,Y) -> Com_1(g(X,Y)) g(X,Y) -> Com_1(g(X,Y-1)) :|: X >= Y", ON),
    "races": ("f(X,Y) -> Com_1(g(X,Y)) g(X,Y) -> Com_1(g(X+2,Y+1)) :|: X > Y && Y >= 3", ON),
    "grows in two steps": ("f(A) -> Com_1(g(A)) g(A) -> Com_1(h(A+3)) :|: A >= 2 h(A) -> Com_1(g(A-1)) :|: A >= 4", ON),
    "queue": ("f(A,B) -> Com_1(g(A,0)) g(A,B) -> Com_1(g(A,B+1)) :|: A >= 1 g(A,B) -> Com_1(g(A-1,B)) :|: A <= 0 && B < 0", ON),
}

# These need start values or free values that walking doesn't try.
FAR = {
    "back from 50 on": ("f(A,B) -> Com_1(g(A,B)) :|: A >= 50 g(A,B) -> Com_1(h(A-B,B)) :|: B >= 20 "
                        "h(A,B) -> Com_1(g(A+B,B)) :|: A <= 7", BACK),
    "on from 1,000 on": ("f(A,B) -> Com_1(g(A,B)) :|: A >= 1000 && B >= A + 77 g(A,B) -> Com_1(g(A,B-1)) :|: B > A + 500 "
                         "g(A,B) -> Com_1(g(A+1,B+1)) :|: A >= 1000", ON),
    "a free value of 40": ("f(A) -> Com_1(g(A)) :|: A >= 100 g(A) -> Com_1(h(A+Z)) :|: 3*Z >= A h(A) -> Com_1(g(A-40))",
                           BACK),
    "affine with B = 3": ("f(A,B) -> Com_1(g(A,3)) :|: A > 9 g(A,B) -> Com_1(g(A*B-2*A,B))", BACK),
    "3 A = 5 B + 7": ("f(A,B) -> Com_1(g(A,B)) :|: 3*A = 5*B + 7 && A >= 100 g(A,B) -> Com_1(g(A,B)) :|: 7*A <= 12*B",
                      BACK),
    "grows behind a fall": ("f(A,B) -> Com_1(g(A,B)) :|: A = 30 && B >= 2*A g(A,B) -> Com_1(h(A,B-40)) :|: B >= 100 "
                            "h(A,B) -> Com_1(h(A+B,B)) :|: A >= B - 50", ON),
}

# Of these all runs end.
ENDING = {
    "falls from 1,000": "f(A,B) -> Com_1(g(A,B)) :|: A >= 1000 && B >= A g(A,B) -> Com_1(g(A+1,B)) :|: A <= B "
                        "g(A,B) -> Com_1(g(A-2,B-4)) :|: A >= 500",
    "counts down": "f(A) -> Com_1(g(A)) g(A) -> Com_1(g(A-1)) :|: A >= 1",
    "meets": "f(A,B) -> Com_1(g(A,B)) g(A,B) -> Com_1(g(A+1,B-1)) :|: A < B",
    "no loop": "f(A) -> Com_1(g(A)) g(A) -> Com_1(h(A))",
    "free start": "f(A) -> Com_1(g(Z)) g(A) -> Com_1(g(A-1)) :|: A >= 1",
}


def program(rules):
    """The text of the program with these rules."""
    return f"(STARTTERM (FUNCTIONSYMBOLS f))(RULES {rules})".encode()
