/** A text is no sum. */
class SyntaxException extends Exception {
    final int place;

    SyntaxException(String why, int place) {
        super(why);
        this.place = place;
    }
}
