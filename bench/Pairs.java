// Producers and consumers in pairs, each with a buffer of one place, which is a monitor. The words are how many pairs there are, and how
// many numbers each producer puts. The sum of all numbers that were got is written.
final class Pairs {
    static final class Buffer {
        private long number;
        private boolean full;

        synchronized void put(long n) throws InterruptedException {
            while (full) wait();
            number = n;
            full = true;
            notifyAll();
        }

        synchronized long get() throws InterruptedException {
            while (!full) wait();
            full = false;
            notifyAll();
            return number;
        }
    }

    static final class Totals {
        private long sum;

        synchronized void add(long n) {
            sum += n;
        }
    }

    interface Work {
        void carryOut() throws InterruptedException;
    }

    static Thread start(Work work) {
        Thread thread = new Thread(() -> {
            try {
                work.carryOut();
            } catch (InterruptedException e) {
                throw new IllegalStateException(e);
            }
        });
        thread.start();
        return thread;
    }

    public static void main(String[] words) throws InterruptedException {
        int pairs = Integer.parseInt(words[0]);
        int items = Integer.parseInt(words[1]);
        Totals totals = new Totals();
        Thread[] threads = new Thread[2 * pairs];
        for (int pair = 0; pair < pairs; pair++) {
            Buffer buffer = new Buffer();
            threads[2 * pair] = start(() -> {
                for (int i = 1; i <= items; i++) buffer.put(i);
            });
            threads[2 * pair + 1] = start(() -> {
                long sum = 0;
                for (int i = 1; i <= items; i++) sum += buffer.get();
                totals.add(sum);
            });
        }
        for (Thread thread : threads) thread.join();
        System.out.println(totals.sum);
    }
}
