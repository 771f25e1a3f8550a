//! The tasks of a sample pool one after the other, in one thread: `plain_pools POOL [--timing RUNS]`. No locks, no events, no waves.

#[allow(dead_code)] // tasks have neither home nor class here
mod graph;
mod sample_pools;
mod timing;

use graph::{Graph, Value, text_of};
use sample_pools::Pool;
use timing::timed;

fn values_of<G: Graph>(graph: G) -> Vec<Value> {
    let mut inputs: Vec<Vec<Value>> = (0..graph.tasks()).map(|it| vec![Value::new(); graph.inputs(it).into()]).collect();
    let mut values = Vec::with_capacity(inputs.len());
    for task in 0..graph.tasks() {
        let value = graph.value(task, &std::mem::take(&mut inputs[task as usize]));
        for (target, place) in (0..graph.feeds(task)).map(|k| graph.feed(task, k)) {
            inputs[target as usize][place] = value.clone();
        }
        values.push(value);
    }
    values
}

fn run<G: Graph>(graph: G, words: &[String]) -> Result<String, String> {
    let (values, times) = timed(words, || Ok::<_, String>(values_of(graph)))?;
    Ok(text_of(&graph, &values, None) + &times)
}

fn main() -> Result<(), String> {
    let words: Vec<String> = std::env::args().skip(1).collect();
    let text = match words.first().ok_or("plain_pools POOL")?.parse()? {
        Pool::Product(graph) => run(graph, &words),
        Pool::Wavefront(graph) => run(graph, &words),
        Pool::Reduce(graph) => run(graph, &words),
    };
    print!("{}", text?);
    Ok(())
}
