/** A sum of whole numbers: `+`, `-`, `*`, `/` and parentheses, read by recursive descent. */
class Sum {
    private final String text;
    private int at;

    Sum(String text) {
        this.text = text;
    }

    /** The value of the whole text. */
    int value() throws SyntaxException {
        int value = terms();
        if (at < text.length()) {
            throw new SyntaxException("something is left", at);
        }
        return value;
    }

    private int terms() throws SyntaxException {
        int value = factors();
        while (next('+') || next('-')) {
            boolean plus = text.charAt(at++) == '+';
            int term = factors();
            value = plus ? value + term : value - term;
        }
        return value;
    }

    private int factors() throws SyntaxException {
        int value = factor();
        while (next('*') || next('/')) {
            boolean times = text.charAt(at++) == '*';
            int factor = factor();
            value = times ? value * factor : value / factor;
        }
        return value;
    }

    private int factor() throws SyntaxException {
        if (next('(')) {
            at++;
            int value = terms();
            if (!next(')')) {
                throw new SyntaxException("a parenthesis is open", at);
            }
            at++;
            return value;
        }
        int begin = at;
        while (at < text.length() && '0' <= text.charAt(at) && text.charAt(at) <= '9') {
            at++;
        }
        if (at == begin) {
            throw new SyntaxException("a number is missing", at);
        }
        return Integer.parseInt(text.substring(begin, at));
    }

    private boolean next(char wanted) {
        return at < text.length() && text.charAt(at) == wanted;
    }
}
