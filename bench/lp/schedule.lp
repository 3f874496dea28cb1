% Jobs that share resources, done as early as can be: job(J,length), use(J,R,amount), limit(R,amount), after(J,K) are given; n steps at most.
{ start(J,T) : T = 0..n-D } = 1 :- job(J,D).
begun(J,T) :- start(J,T).
begun(J,T+1) :- begun(J,T), T < n.
done(J,T+D) :- begun(J,T), job(J,D), T+D <= n.
:- after(J,K), start(J,T), not done(K,T).
:- limit(R,L), T = 0..n-1, #sum { A,J : use(J,R,A), begun(J,T), not done(J,T) } > L.
late(T) :- job(J,_), T = 0..n-1, not done(J,T).
#minimize { 1,T : late(T) }.
#show start/2.
