import casbench.CasHistory;
import casbench.RecordingClient;
import casbench.examples.ReplicatedMap.Fault;

import java.nio.file.Paths;
import java.util.ArrayList;
import java.util.List;
import java.util.Map;
import java.util.Random;

import org.opensearch.action.ActionRequest;
import org.opensearch.action.ActionType;
import org.opensearch.action.bulk.BulkAction;
import org.opensearch.action.bulk.BulkRequest;
import org.opensearch.action.delete.DeleteAction;
import org.opensearch.action.delete.DeleteRequest;
import org.opensearch.action.get.GetAction;
import org.opensearch.action.get.GetRequest;
import org.opensearch.action.get.GetResponse;
import org.opensearch.action.get.MultiGetAction;
import org.opensearch.action.get.MultiGetRequest;
import org.opensearch.action.index.IndexAction;
import org.opensearch.action.index.IndexRequest;
import org.opensearch.action.update.UpdateAction;
import org.opensearch.action.update.UpdateRequest;
import org.opensearch.client.Client;
import org.opensearch.core.action.ActionListener;
import org.opensearch.core.action.ActionResponse;

/** All requests that a recording client records, by several threads on a replicated map: {@code Mixed FILE FAULT OPTION..}. */
public final class Mixed {
    private static final int THREADS = 8;
    private static final int TURNS = 400;
    private static final int DOCUMENTS = 6;

    private final Client client;
    private final Random random;

    private Mixed(Client client, int seed) {
        this.client = client;
        this.random = new Random(seed);
    }

    public static void main(String[] words) throws InterruptedException {
        OnMap map = new OnMap(Fault.valueOf(words[1]));
        CasHistory history = CasHistory.open(Paths.get(words[0]));
        RecordingClient.Index index = new RecordingClient.Index(history, "carts");
        List<Thread> threads = new ArrayList<>();
        for (int i = 0; i < THREADS; i++) {
            Mixed mixed = new Mixed(new RecordingClient(map, index, null), i);
            threads.add(new Thread(mixed::run));
        }
        threads.forEach(Thread::start);
        while (threads.stream().anyMatch(Thread::isAlive)) {
            map.disrupt();
        }
        for (Thread thread : threads) {
            thread.join();
        }
        try {
            history.assertExplained(List.of(words).subList(2, words.length).toArray(new String[0]));
            System.out.println("passed");
        } catch (AssertionError failure) {
            System.out.println("failed: " + failure.getMessage());
        }
    }

    private void run() {
        for (int i = 0; i < TURNS; i++) {
            String id = id();
            switch (random.nextInt(8)) {
                case 0:
                    ask(IndexAction.INSTANCE, index(id));
                    break;
                case 1:
                    ask(UpdateAction.INSTANCE, update(id));
                    break;
                case 2:
                    ask(DeleteAction.INSTANCE, new DeleteRequest("carts").id(id));
                    break;
                case 3:
                    ask(BulkAction.INSTANCE, new BulkRequest().add(index(id)).add(update(id())).add(index(id()).create(true)));
                    break;
                case 4:
                    ask(MultiGetAction.INSTANCE, new MultiGetRequest().add("carts", id).add("carts", id()));
                    break;
                default:
                    swap(id);
            }
        }
    }

    private void swap(String id) {
        GetResponse[] read = new GetResponse[1];
        client.get(new GetRequest("carts", id), new ActionListener<>() {
            @Override
            public void onResponse(GetResponse response) {
                read[0] = response;
            }

            @Override
            public void onFailure(Exception fault) {}
        });
        if (read[0] != null && read[0].isExists()) {
            ask(IndexAction.INSTANCE, index(id).setIfSeqNo(read[0].getSeqNo()).setIfPrimaryTerm(read[0].getPrimaryTerm()));
        }
    }

    private String id() {
        return "d" + random.nextInt(DOCUMENTS);
    }

    /** A write of one of few sources, so that equal ones come again. */
    private IndexRequest index(String id) {
        return new IndexRequest("carts").id(id).source(Map.of("a", random.nextInt(3), "b", random.nextInt(3)));
    }

    private UpdateRequest update(String id) {
        return new UpdateRequest("carts").id(id).doc(Map.of("a", random.nextInt(3)));
    }

    private <R extends ActionResponse> void ask(ActionType<R> action, ActionRequest request) {
        client.execute(action, request, new ActionListener<R>() {
            @Override
            public void onResponse(R response) {}

            @Override
            public void onFailure(Exception fault) {}
        });
    }
}
