// In GNU Backgammon's makehyper.c, HyperEquity, below "no legal moves", these lines replace the loop
//     for (k = 0; k < 5; ++k) heBest.arEquity[k] = -heBest.arEquity[k];
// so that after a roll that can't be played the other side has the cube where it is, and doubles where it may (docs/OTHER_PROGRAMS.md).
phex = &aheOld[nPos * nThem + nUs];
heBest.arEquity[EQUITY_CUBELESS] = -phex->arEquity[EQUITY_CUBELESS];
heBest.arEquity[EQUITY_OWNED] = -phex->arEquity[EQUITY_OPPONENT];
for (k = EQUITY_CENTER; k <= EQUITY_CENTER_JACOBY; ++k)
    heBest.arEquity[k] = -CubeEquity(phex->arEquity[k], phex->arEquity[EQUITY_OPPONENT], +1.0);
heBest.arEquity[EQUITY_OPPONENT] = -CubeEquity(phex->arEquity[EQUITY_OWNED], phex->arEquity[EQUITY_OPPONENT], +1.0);
