import java.io.File;
import java.util.List;
import org.eclipse.jgit.api.CloneCommand;
import org.eclipse.jgit.api.FetchCommand;
import org.eclipse.jgit.api.Git;
import org.eclipse.jgit.lib.NullProgressMonitor;
import org.eclipse.jgit.lib.Ref;
import org.eclipse.jgit.lib.Repository;
import org.eclipse.jgit.transport.FilterSpec;
import org.eclipse.jgit.transport.RefSpec;
import org.eclipse.jgit.transport.Transport;
import org.eclipse.jgit.transport.URIish;
import org.eclipse.jgit.transport.UploadPack;

/** A client and a server over JGit: `JGitPeer VERB ADDRESS FOLDER`, or `JGitPeer upload-pack FOLDER` on standard input and output. */
public class JGitPeer {
    public static void main(String[] words) {
        try {
            run(words);
        } catch (Exception error) {
            for (Throwable cause = error; cause != null; cause = cause.getCause())
                System.err.println(cause);
            System.exit(1);
        }
    }

    private static void run(String[] words) throws Exception {
        if (words[0].equals("upload-pack"))
            serve(new File(words[1]));
        else if (words[0].equals("list"))
            list(words[1]);
        else if (words[0].equals("filter-bare"))
            cloneFiltered(words[1], new File(words[2]));
        else if (List.of("deepen", "unshallow", "fetch").contains(words[0]))
            fetch(words[0], new File(words[2]));
        else
            copy(words[0], words[1], new File(words[2]));
    }

    private static void list(String address) throws Exception {
        for (Ref ref : Git.lsRemoteRepository().setRemote(address).call())
            System.out.println(ref.getObjectId().name() + " " + ref.getName());
    }

    private static void copy(String verb, String address, File folder) throws Exception {
        CloneCommand command = Git.cloneRepository().setURI(address).setDirectory(folder);
        if (verb.equals("bare"))
            command.setBare(true);
        else if (verb.equals("branch"))
            command.setCloneAllBranches(false).setBranchesToClone(List.of("refs/heads/topic")).setBranch("refs/heads/topic");
        else if (verb.equals("depth"))
            command.setDepth(1);
        else if (!verb.equals("clone"))
            System.exit(125); // JGit has none: it fetches nothing later that a filter left out
        command.call().close();
    }

    private static void fetch(String verb, File folder) throws Exception {
        try (Git git = Git.open(folder)) {
            FetchCommand command = git.fetch();
            if (verb.equals("deepen"))
                command.setDepth(2);
            else if (verb.equals("unshallow"))
                command.setUnshallow(true);
            command.call();
        }
    }

    private static void cloneFiltered(String address, File folder) throws Exception {
        try (Git git = Git.init().setBare(true).setDirectory(folder).call();
                Transport transport = Transport.open(git.getRepository(), new URIish(address))) {
            transport.setFilterSpec(FilterSpec.fromFilterLine("blob:none"));
            transport.setCheckFetchedObjects(false);
            transport.fetch(NullProgressMonitor.INSTANCE, List.of(new RefSpec("+refs/heads/*:refs/heads/*")));
        }
    }

    private static void serve(File folder) throws Exception {
        try (Repository repository = Git.open(folder).getRepository()) {
            UploadPack server = new UploadPack(repository);
            server.setExtraParameters(List.of("version=2"));
            server.upload(System.in, System.out, System.err);
        }
    }
}
