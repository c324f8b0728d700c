public class Counter
{
    private int count;

    public int Count { get { return count; } }

    public void Add(int n) { count = count + n; }
}
