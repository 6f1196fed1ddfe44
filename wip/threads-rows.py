"""bench.py RUNS NAME=PROGRAM ..: bench/threads' rows, the programs by turns; least and middle times of turns and whole runs."""
import subprocess,sys,time,os
runs=int(sys.argv[1]); progs=[a.split('=') for a in sys.argv[2:]]
I="idl\ninterface i { message ping(uint32 v); rpc echo(in uint32 x, out uint32 y); }\n.\n"
def both(n,link,wire,c=2,last=1): return I+f"cores {c}\n{link}disp d 0\ndisp e {last}\nexport s e i\nbind p d i s {wire}\n"+"".join(f"call p.c ping({v})\ncall p.s ping({v})\n" for v in range(n//2))
L3="link 0 1 64\nlink 1 2 64\nlink 2 3 64\n"
N=4000
rows={"ring":both(N,"","ump 64"),"circuit":both(N,"link 0 1 64\n","hop 0 1"),
"hops":I+f"cores 4\n{L3}disp d 0\ndisp e 3\nexport s e i\nbind p d i s hop 0 1 2 3\n"+"".join(f"call p.c ping({v})\n" for v in range(N)),
"rule":I+"cores 2\ndisp d 0\ndisp e 1\nexport s e i\nbind p d i s ump 64\nreply p.s echo_call echo_response\n"+"".join(f"call p.c echo_call({v})\n" for v in range(N//2)),
"both ways over three hops":both(N,L3,"hop 0 1 2 3",4,3)}
want=os.environ.get('ROWS'); 
for name,text in rows.items():
    if want and name not in want.split(','): continue
    if not want and name.startswith('both'): continue
    p=f'/tmp/pace-bench-{os.getpid()}.cores'; open(p,'w').write(text)
    T={n:{'0':[],'1000000000000':[]} for n,_ in progs}; late=0
    for k in range(runs):
        for j in range(len(progs)):
            n,prog=progs[(k+j)%len(progs)]
            for turns in T[n]:
                t=time.perf_counter()
                try:
                    d=subprocess.run([prog,'cores',p,'--turns',turns],capture_output=True,timeout=20)
                    T[n][turns].append(1e3*(time.perf_counter()-t)); assert turns=='0' or d.stdout.endswith(b'complete\n'),d
                except subprocess.TimeoutExpired: late+=1
    base=None
    for n,_ in progs:
        r,w=[sorted(T[n][t]) for t in ('0','1000000000000')]
        v=(w[0],w[0]-r[0],w[len(w)//2],w[len(w)//2]-r[len(r)//2])
        base=base or v
        print(f"{name:26s} {n:6s} least: whole {v[0]:6.2f} ({v[0]/base[0]:.2f}) turns {v[1]:6.2f} ({v[1]/base[1]:.2f})  middle: whole {v[2]:6.2f} ({v[2]/base[2]:.2f}) turns {v[3]:6.2f} ({v[3]/base[3]:.2f})  late {late}  load {os.getloadavg()[0]:.0f}",flush=True)
    os.remove(p)
