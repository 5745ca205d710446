/**
 * Runs the loop that its first word names, as many turns as the second says. Before that it makes as many arrays as the
 * third says, which stay in the heap. In each loop one statement stands ten times. Each answers seven more than its turns.
 */
public class Ops {
    static int[][] arrays;

    public static void main(String[] words) {
        String name = words[0];
        int turns = Integer.parseInt(words[1]);
        arrays = new int[Integer.parseInt(words[2])][0];
        int answer = 0;
        if (name.equals("move")) {
            answer = move(turns);
        } else if (name.equals("getfield")) {
            answer = getfield(turns);
        } else if (name.equals("putfield")) {
            answer = putfield(turns);
        } else if (name.equals("iaload")) {
            answer = iaload(turns);
        } else if (name.equals("iastore")) {
            answer = iastore(turns);
        } else if (name.equals("aaload")) {
            answer = aaload(turns);
        } else if (name.equals("virtual")) {
            answer = virtual(turns);
        } else if (name.equals("interface")) {
            answer = throughInterface(turns);
        } else if (name.equals("thrown")) {
            answer = thrown(turns);
        }
        System.out.println("ran " + name + " " + answer);
    }

    static int move(int turns) {
        int to = 7;
        int from = 7;
        for (int n = 0; n < turns; n++) {
            to = from;
            to = from;
            to = from;
            to = from;
            to = from;
            to = from;
            to = from;
            to = from;
            to = from;
            to = from;
        }
        return to + turns;
    }

    static int getfield(int turns) {
        int to = 0;
        Pair pair = new Pair();
        pair.right = 7;
        for (int n = 0; n < turns; n++) {
            to = pair.right;
            to = pair.right;
            to = pair.right;
            to = pair.right;
            to = pair.right;
            to = pair.right;
            to = pair.right;
            to = pair.right;
            to = pair.right;
            to = pair.right;
        }
        return to + turns;
    }

    static int putfield(int turns) {
        int from = 7;
        Pair pair = new Pair();
        for (int n = 0; n < turns; n++) {
            pair.right = from;
            pair.right = from;
            pair.right = from;
            pair.right = from;
            pair.right = from;
            pair.right = from;
            pair.right = from;
            pair.right = from;
            pair.right = from;
            pair.right = from;
        }
        return pair.right + turns;
    }

    static int iaload(int turns) {
        int to = 0;
        int at = 3;
        int[] row = new int[4];
        row[3] = 7;
        for (int n = 0; n < turns; n++) {
            to = row[at];
            to = row[at];
            to = row[at];
            to = row[at];
            to = row[at];
            to = row[at];
            to = row[at];
            to = row[at];
            to = row[at];
            to = row[at];
        }
        return to + turns;
    }

    static int iastore(int turns) {
        int from = 7;
        int at = 3;
        int[] row = new int[4];
        for (int n = 0; n < turns; n++) {
            row[at] = from;
            row[at] = from;
            row[at] = from;
            row[at] = from;
            row[at] = from;
            row[at] = from;
            row[at] = from;
            row[at] = from;
            row[at] = from;
            row[at] = from;
        }
        return row[3] + turns;
    }

    static int aaload(int turns) {
        int at = 3;
        int[] to = null;
        int[][] rows = new int[4][7];
        for (int n = 0; n < turns; n++) {
            to = rows[at];
            to = rows[at];
            to = rows[at];
            to = rows[at];
            to = rows[at];
            to = rows[at];
            to = rows[at];
            to = rows[at];
            to = rows[at];
            to = rows[at];
        }
        return to.length + turns;
    }

    static int virtual(int turns) {
        int to = 0;
        int from = 7;
        Pair pair = new Pair();
        for (int n = 0; n < turns; n++) {
            to = pair.same(from);
            to = pair.same(from);
            to = pair.same(from);
            to = pair.same(from);
            to = pair.same(from);
            to = pair.same(from);
            to = pair.same(from);
            to = pair.same(from);
            to = pair.same(from);
            to = pair.same(from);
        }
        return to + turns;
    }

    static int throughInterface(int turns) {
        int to = 0;
        int from = 7;
        Kind kind = new Pair();
        for (int n = 0; n < turns; n++) {
            to = kind.same(from);
            to = kind.same(from);
            to = kind.same(from);
            to = kind.same(from);
            to = kind.same(from);
            to = kind.same(from);
            to = kind.same(from);
            to = kind.same(from);
            to = kind.same(from);
            to = kind.same(from);
        }
        return to + turns;
    }

    static int thrown(int turns) {
        RuntimeException thrown = new IllegalStateException();
        for (int n = 0; n < turns; n++) {
            try {
                throw thrown;
            } catch (RuntimeException caught) {
            }
            try {
                throw thrown;
            } catch (RuntimeException caught) {
            }
            try {
                throw thrown;
            } catch (RuntimeException caught) {
            }
            try {
                throw thrown;
            } catch (RuntimeException caught) {
            }
            try {
                throw thrown;
            } catch (RuntimeException caught) {
            }
            try {
                throw thrown;
            } catch (RuntimeException caught) {
            }
            try {
                throw thrown;
            } catch (RuntimeException caught) {
            }
            try {
                throw thrown;
            } catch (RuntimeException caught) {
            }
            try {
                throw thrown;
            } catch (RuntimeException caught) {
            }
            try {
                throw thrown;
            } catch (RuntimeException caught) {
            }
        }
        return 7 + turns;
    }
}
