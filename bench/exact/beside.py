"""Asks networkx for the length of a shortest round of each town of a file, which has a line for each: the length as the planner says it, then the ends and the length of each street."""
import sys
import time

import networkx


def read(line):
    said, *numbers = map(int, line.split())
    return said, list(zip(numbers[::3], numbers[1::3], numbers[2::3]))


def graph_of(streets):
    """Crossings, with the shortest street between two."""
    graph = networkx.Graph()
    for one, two, length in streets:
        if one != two and (not graph.has_edge(one, two) or length < graph[one][two]["weight"]):
            graph.add_edge(one, two, weight=length)
    return graph


def odd_crossings(streets):
    ends = [end for one, two, _ in streets for end in (one, two)]
    return [v for v in set(ends) if ends.count(v) % 2]


def shortest(streets):
    graph, odd, pairs = graph_of(streets), odd_crossings(streets), networkx.Graph()
    for v in odd:
        far = networkx.single_source_dijkstra_path_length(graph, v)
        pairs.add_weighted_edges_from((v, w, far[w]) for w in odd if v < w)
    paired = networkx.min_weight_matching(pairs)
    return sum(length for _, _, length in streets) + sum(pairs[v][w]["weight"] for v, w in paired)


def main():
    times = []
    with open(sys.argv[1], encoding="ascii") as file:
        for number, line in enumerate(file, 1):
            said, streets = read(line)
            begin = time.process_time()
            found = shortest(streets)
            times.append(time.process_time() - begin)
            if said != found:
                sys.exit(f"line {number} of {sys.argv[1]}: planner {said}, networkx {found}")
    print(f"\nnetworkx {networkx.__version__} finds the same lengths for {len(times)} towns, in at most {1000 * max(times):.0f} ms")


main()
