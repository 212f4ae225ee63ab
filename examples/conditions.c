// One body for several systems: heads, conditions and lists that are split by `#if`.
#if defined(_WIN32)&&!defined(__CYGWIN__)
#  include <windows.h>
#  define SYSTEM_NAME "windows"
#elif defined(__linux__) || defined ( __ANDROID__ )
#  include <unistd.h>
#  ifdef __ANDROID__
#    define SYSTEM_NAME "android"
#  else
#    define SYSTEM_NAME "linux"
#  endif
#else
#  error "unknown system"
#endif

#ifndef PAGE_SIZE
# define PAGE_SIZE 4096
#endif

#define MIN(a,b)  ((a)<(b)?(a):(b))
#define DECLARE(type, name, ...) type name = {__VA_ARGS__}
#define STRING(x)  #x
#define JOIN( a , b )  a ## b
#define EMPTY

#ifdef HAVE_THREADS
static int read_all(struct file *file, char *to, long size, struct lock *lock)
#else
static int read_all(struct file *file, char *to, long size)
#endif
{
    long done=0;
#ifdef HAVE_THREADS
    lock_take(lock);
#endif
    while(done<size){
        long step=MIN(PAGE_SIZE,size-done);
#if defined(_WIN32)
        DWORD got;
        if(!ReadFile(file->handle,to+done,(DWORD)step,&got,NULL))
#else
        long got=read(file->descriptor,to+done,(size_t)step);
        if (got<0)
#endif
        {
#ifdef HAVE_THREADS
            lock_give(lock);
#endif
            return -1;
        }
        if(got==0)break;
        done+=got;
    }
#ifdef HAVE_THREADS
    lock_give(lock);
#endif
    return (int)done;
}

#if 0
this is no C at all: don't touch   it
#endif

static const struct option options[] = {
    { "verbose", 'v', 0 },
#ifdef HAVE_THREADS
    { "threads", 't', 1 },
#  if HAVE_THREADS>1
    { "affinity",'a',1 },
#  endif
#endif
    {0}
};

int main(int argc,char**argv)
{
    int index,verbose=0;
    for(index=1;index<argc;index++){
        if(argv[index][0]!='-')
            break;
        switch(argv[index][1]){
        case 'v': verbose++; break;
#ifdef HAVE_THREADS
        case 't':
            set_threads(argv[++index]);
            break;
#endif
        default: return usage ( STRING( JOIN( un , known ) ) EMPTY );
        }
    }
    return run(argv+index,verbose,
#if defined(__linux__)
        sysconf(_SC_PAGESIZE),
#else
        PAGE_SIZE,
#endif
        SYSTEM_NAME);
}
