// A program for checks/written.sh: types of each kind, bodies with handlers and clauses, the bytes of a field, strings
// of user text, generic methods, and members that are found by their names.
using System;
using System.Collections.Generic;

interface IShape
{
    int Area { get; }
}

struct Square : IShape
{
    readonly int side;

    public Square(int side)
    {
        this.side = side;
    }

    public int Area
    {
        get { return side * side; }
    }
}

class Rectangle : IShape
{
    protected readonly int Width, Height;

    public Rectangle(int width, int height)
    {
        Width = width;
        Height = height;
    }

    public virtual int Area
    {
        get { return Width * Height; }
    }

    public override string ToString()
    {
        return GetType().Name + " " + Area;
    }
}

sealed class Frame : Rectangle
{
    public Frame(int width, int height) : base(width, height)
    {
    }

    public override int Area
    {
        get { return base.Area - (Width - 2) * (Height - 2); }
    }
}

static class Program
{
    static readonly int[] Primes = { 2, 3, 5, 7, 11, 13, 17, 19 };

    enum Level : byte
    {
        Low = 1,
        High = 200,
    }

    static T Greatest<T>(IEnumerable<T> all) where T : IComparable<T>
    {
        T greatest = default(T);
        foreach (T one in all)
        {
            if (one.CompareTo(greatest) > 0)
            {
                greatest = one;
            }
        }
        return greatest;
    }

    static IEnumerable<int> Areas(params IShape[] shapes)
    {
        foreach (IShape shape in shapes)
        {
            yield return shape.Area;
        }
    }

    static int Divided(int a, int b)
    {
        try
        {
            return checked(a * 65536) / b;
        }
        catch (DivideByZeroException)
        {
            return -1;
        }
        catch (OverflowException error) when (error.InnerException == null)
        {
            return -2;
        }
        finally
        {
            Console.WriteLine("divided {0} by {1}", a, b);
        }
    }

    static int Main(string[] words)
    {
        Console.WriteLine("{0} words, the longest \u00fcber \"{1}\"", words.Length, Greatest(words));
        Console.WriteLine(Greatest(Areas(new Square(3), new Rectangle(4, 5), new Frame(4, 5))));
        Console.WriteLine(new Frame(4, 5));
        Console.WriteLine(Greatest(Primes) + " " + Level.High + " " + typeof(Program).GetMethods().Length);
        Console.WriteLine(Divided(6, 4) + Divided(6, 0) + Divided(1 << 20, 1));
        switch (words.Length == 0 ? "" : words[0])
        {
            case "one":
                return 1;
            case "two":
                return 2;
            default:
                return 3;
        }
    }
}
