/** What a visitor gets instead of the pages themselves: it stands between, for one visit. */
public class Caretaker implements Archive {
    private final String[] pages;

    Caretaker(String[] pages) {
        this.pages = pages;
    }

    public String page(int number) {
        System.out.println("lends page " + number);
        return pages[number];
    }
}
