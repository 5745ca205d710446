public class Fall extends RuntimeException {
    public Object what;
}
