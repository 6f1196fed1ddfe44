"""row.py PROGRAM RUNS [SECONDS] [KEY=VALUE ..]: free runs of the row of 100 calls each way over links of 4; how many stick; times."""
import subprocess,sys,time,os,statistics,re
prog,runs=sys.argv[1],int(sys.argv[2]); secs=float(sys.argv[3]) if len(sys.argv)>3 else 5
env=dict(os.environ); 
for kv in sys.argv[4:]:
    k,v=kv.split('=',1); env[k]=v
C=int(os.environ.get('CORES','3'))
text="""idl
interface i { message ping(uint32 v); }
.
cores %d
%sdisp d 0
disp e %d
export s e i
bind p d i s hop %s
""" % (C,"".join(f"link {k} {k+1} 4\n" for k in range(C-1)),C-1," ".join(map(str,range(C)))) + "".join(f"call p.{'c' if k < 100 else 's'} ping({k})\n" for k in range(200))
p=f'/tmp/pace-row-{os.getpid()}.cores'; open(p,'w').write(text)
want="".join(f"handle p.c ping({k})\n" for k in range(100,200))+"".join(f"handle p.s ping({k})\n" for k in range(100))+"complete\n"
stuck=0; bad=0; ts=[]; vain=0
for _ in range(runs):
    t=time.perf_counter()
    try:
        d=subprocess.run([prog,'cores',p,'--turns',os.environ.get('TURNS','1000000000000')],capture_output=True,timeout=secs,env=env)
        ts.append(time.perf_counter()-t)
        if d.returncode==5: stuck+=1
        elif d.stdout.decode()!=want: bad+=1; print(d.returncode,d.stdout[-100:],d.stderr[-200:])
        if b'vain' in d.stderr: vain+=1
    except subprocess.TimeoutExpired: stuck+=1
ts.sort()
print(f"{runs} runs: {stuck} stuck, {bad} wrong, {vain} with waits in vain; ms least {1e3*ts[0]:.2f} middle {1e3*ts[len(ts)//2]:.2f} p90 {1e3*ts[len(ts)*9//10]:.2f} most {1e3*ts[-1]:.2f}; load {os.getloadavg()[0]:.1f}")
os.remove(p)
